#include "watch.h"

#include "ns3/boolean.h"
#include "ns3/simulator.h"

#include <algorithm>
#include <functional>
#include <map>
#include <string>

namespace feed
{

using namespace ns3;

Watch::Watch(Ptr<LeastLossQueueDisc> disc, const Stream& stream)
    : m_disc(disc),
      m_stream(stream),
      m_fullest(0)
{
    using Row = LeastLossQueueDisc::Row;
    disc->TraceConnectWithoutContext(
        "Slot",
        Callback<void, const Row&>([this](const Row& row) { m_slots.push_back(row); }));
    disc->TraceConnectWithoutContext(
        "SojournTime",
        Callback<void, Time>([this](Time stay) { m_longest = std::max(m_longest, stay); }));
    disc->TraceConnectWithoutContext(
        "PacketsInQueue",
        Callback<void, uint32_t, uint32_t>(
            [this](uint32_t, uint32_t fill) { m_fullest = std::max(m_fullest, fill); }));
}

bool
Watch::AtOnce() const
{
    BooleanValue atOnce;
    m_disc->GetAttribute("AtOnce", atOnce);
    return atOnce.Get();
}

void
Watch::Compare(const Rows& seen) const
{
    CompareSlots(seen);
    CompareDrops(seen);
    CompareTimes(seen);
    CompareWindows(seen);
}

// Each slot with arrivals, or before which packets were held, is told once, in order, and no other
// is. Where nothing ever departs, nobody waits for the slots after the last arrivals.
void
Watch::CompareSlots(const Rows& seen) const
{
    uint64_t slots = m_stream.arrivals.size();
    while (slots > 0 && m_stream.table[1] == 0 && m_stream.arrivals[slots - 1] == 0)
    {
        slots--;
    }
    auto told = m_slots.begin();
    uint64_t held = 0;
    for (uint64_t slot = 1; slot <= slots; slot++)
    {
        uint64_t arrived = m_stream.arrivals[slot - 1];
        uint64_t admitted = seen.admitted[slot - 1];
        uint64_t departed = seen.departed[slot - 1];
        uint64_t before = held;
        held += admitted - departed;
        if (arrived + before > 0)
        {
            NS_ABORT_MSG_IF(told == m_slots.end() || told->slot != slot ||
                                told->arrived != arrived || told->admitted != admitted ||
                                told->dropped != arrived - admitted || told->departed != departed ||
                                told->held != held,
                            "slot " << slot << " is not the one traced");
            told++;
        }
    }
    NS_ABORT_MSG_IF(told != m_slots.end() && told->slot <= slots,
                    "slot " << told->slot << " is traced, and has nothing");
}

// The reasons are worked from the rows: a full buffer, or else the delay limit.
void
Watch::CompareDrops(const Rows& seen) const
{
    std::map<std::string, uint32_t, std::less<>> reasons;
    uint64_t held = 0;
    for (size_t i = 0; i < m_stream.arrivals.size(); i++)
    {
        held += seen.admitted[i];
        uint32_t dropped = m_stream.arrivals[i] - seen.admitted[i];
        if (dropped > 0)
        {
            reasons[held == m_stream.buffer ? "Buffer limit" : "Delay limit"] += dropped;
        }
        held -= seen.departed[i];
    }
    NS_ABORT_MSG_IF(m_disc->GetStats().nDroppedPacketsBeforeEnqueue != reasons,
                    "packets are not dropped for these reasons:\n"
                        << m_disc->GetStats());
}

void
Watch::CompareTimes(const Rows& seen) const
{
    Time most = SLOT * (m_stream.delay + (AtOnce() ? 0 : 1));
    NS_ABORT_MSG_IF(m_stream.delay != BEZHANTIRU_NO_DELAY && m_longest > most,
                    "a packet stays " << m_longest);
    NS_ABORT_MSG_IF(m_fullest > m_stream.buffer, "there are " << m_fullest << " packets");
    NS_ABORT_MSG_IF(!std::is_sorted(seen.order.begin(), seen.order.end()), "not in their order");
    NS_ABORT_MSG_IF(!m_slots.empty() && Simulator::Now() > SLOT * m_slots.back().slot,
                    "the simulation goes on until " << Simulator::Now());
}

// In any half-open time of k slots at most f(k) packets leave, with AtOnce at most f(k + 1).
void
Watch::CompareWindows(const Rows& seen) const
{
    for (uint32_t k = 1; k <= 2 * m_stream.table.size(); k++)
    {
        uint32_t window = AtOnce() ? k + 1 : k;
        auto most = bezhantiru_envelope(m_stream.table.data(), m_stream.table.size(), window);
        for (auto first = seen.sent.begin(); first != seen.sent.end(); first++)
        {
            auto after = std::lower_bound(first, seen.sent.end(), *first + SLOT * k);
            NS_ABORT_MSG_IF(uint64_t(after - first) > most.packets,
                            after - first << " packets leave in " << k << " slots from " << *first);
        }
    }
}

} // namespace feed

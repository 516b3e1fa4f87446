#include "least-loss-queue-disc.h"

#include "ns3/abort.h"
#include "ns3/boolean.h"
#include "ns3/drop-tail-queue.h"
#include "ns3/log.h"
#include "ns3/simulator.h"
#include "ns3/string.h"
#include "ns3/uinteger.h"

#include <algorithm>
#include <charconv>
#include <limits>
#include <sstream>
#include <vector>

namespace ns3
{

NS_LOG_COMPONENT_DEFINE("LeastLossQueueDisc");

NS_OBJECT_ENSURE_REGISTERED(LeastLossQueueDisc);

namespace
{

constexpr uint64_t MOST_ARRIVALS = 1000000; // that the library takes in a slot

// Those of the numbers in bezhantiru.h that a set-up or a slot can get.
const char*
Words(uint32_t number)
{
    switch (number)
    {
    case 1:
        return "Table has not 2 to 65 entries";
    case 2:
        return "the first entry of Table is not 0";
    case 3:
        return "Table has an entry above 1,000,000";
    case 4:
        return "Table has an entry below the one before";
    case 6:
        return "Delay is neither 0 to 64 nor 255";
    case 7:
        return "Buffer is neither 0 to 1,000,000 nor 4,294,967,295";
    case 8:
        return "more than 1,000,000 packets in a slot";
    case 9:
        return "1,000,000 slots already taken";
    case 23:
        return "neither Delay nor Buffer is a limit";
    default:
        return "see bezhantiru.h";
    }
}

void
AbortIfRefused(uint32_t number)
{
    NS_ABORT_MSG_IF(number != 0, "LeastLossQueueDisc: refused " << number << ", " << Words(number));
}

std::vector<uint32_t>
Entries(const std::string& text)
{
    std::vector<uint32_t> numbers;
    std::istringstream words(text);
    for (std::string word; words >> word;)
    {
        uint32_t number = 0;
        const char* end = word.data() + word.size();
        auto [rest, problem] = std::from_chars(word.data(), end, number);
        NS_ABORT_MSG_IF(rest != end || problem != std::errc(),
                        "LeastLossQueueDisc: in Table '" << word << "' is no number of packets");
        numbers.push_back(number);
    }
    return numbers;
}

} // namespace

TypeId
LeastLossQueueDisc::GetTypeId()
{
    static TypeId tid =
        TypeId("ns3::LeastLossQueueDisc")
            .SetParent<QueueDisc>()
            .SetGroupName("TrafficControl")
            .AddConstructor<LeastLossQueueDisc>()
            .AddAttribute("Table",
                          "The most packets that may depart in 0, 1, 2, .. slots, with spaces "
                          "between: 0 first, then 1 to 64 entries up to 1,000,000 that do not fall",
                          StringValue(""),
                          MakeStringAccessor(&LeastLossQueueDisc::m_table),
                          MakeStringChecker())
            .AddAttribute("Delay",
                          "The delay limit in slots, 0 to 64, or 255 for none",
                          UintegerValue(BEZHANTIRU_NO_DELAY),
                          MakeUintegerAccessor(&LeastLossQueueDisc::m_delay),
                          MakeUintegerChecker<uint32_t>())
            .AddAttribute("Buffer",
                          "The buffer limit in packets, 0 to 1,000,000, or 4,294,967,295 for none; "
                          "it counts the packets that are there before a slot's departures",
                          UintegerValue(BEZHANTIRU_NO_BUFFER),
                          MakeUintegerAccessor(&LeastLossQueueDisc::m_buffer),
                          MakeUintegerChecker<uint32_t>())
            .AddAttribute("Slot",
                          "The length of a slot",
                          TimeValue(MilliSeconds(1)),
                          MakeTimeAccessor(&LeastLossQueueDisc::m_length),
                          MakeTimeChecker(Time(1)))
            .AddAttribute("AtOnce",
                          "Whether packets leave as early as the counts of a slot allow, and not "
                          "at the slot's end",
                          BooleanValue(false),
                          MakeBooleanAccessor(&LeastLossQueueDisc::m_atOnce),
                          MakeBooleanChecker())
            .AddTraceSource("Slot",
                            "The counts of a slot that has ended; slots without arrivals before "
                            "which nothing was held are left out",
                            MakeTraceSourceAccessor(&LeastLossQueueDisc::m_traceSlot),
                            "ns3::LeastLossQueueDisc::RowTracedCallback");
    return tid;
}

LeastLossQueueDisc::LeastLossQueueDisc()
    : QueueDisc(QueueDiscSizePolicy::SINGLE_INTERNAL_QUEUE, QueueSizeUnit::PACKETS)
{
    NS_LOG_FUNCTION(this);
}

void
LeastLossQueueDisc::DoDispose()
{
    NS_LOG_FUNCTION(this);
    m_end.Cancel();
    QueueDisc::DoDispose();
}

bool
LeastLossQueueDisc::CheckConfig()
{
    NS_LOG_FUNCTION(this);
    // Not by an answer of false, which a build without assertions goes on from.
    NS_ABORT_MSG_IF(GetNQueueDiscClasses() + GetNPacketFilters() + GetNInternalQueues() > 0,
                    "LeastLossQueueDisc: takes no classes, filters or queues");
    NS_ABORT_MSG_IF(!GetSendCallback(), "LeastLossQueueDisc: has to be a root queue disc");
    std::vector<uint32_t> table = Entries(m_table);
    table.reserve(1); // the library wants a pointer, also to no entry
    auto made = bezhantiru_set_up(table.data(), table.size(), m_delay, m_buffer);
    AbortIfRefused(made.number);
    m_regulator = made.regulator;
    // The regulator bounds it; a limit of its own would be 100 packets.
    QueueSize any(QueueSizeUnit::PACKETS, std::numeric_limits<uint32_t>::max());
    AddInternalQueue(
        CreateObjectWithAttributes<DropTailQueue<QueueDiscItem>>("MaxSize", QueueSizeValue(any)));
    return true;
}

void
LeastLossQueueDisc::InitializeParams()
{
    NS_LOG_FUNCTION(this);
    m_admitted = m_held = m_arrived = m_released = m_due = 0;
    m_open = false;
}

bool
LeastLossQueueDisc::DoEnqueue(Ptr<QueueDiscItem> item)
{
    NS_LOG_FUNCTION(this << item);
    // Events of one instant come in any order: the end of a slot may not have come yet. What left
    // with it makes room.
    CatchUp();
    Open();
    Send();
    m_arrived++;
    Await();
    if (m_arrived > m_headroom)
    {
        DropBeforeEnqueue(item, m_reason);
        return false;
    }
    m_admitted++;
    if (m_atOnce && m_released < m_allowance)
    {
        m_released++;
        m_due++;
    }
    return GetInternalQueue(0)->Enqueue(item);
}

Ptr<QueueDiscItem>
LeastLossQueueDisc::DoDequeue()
{
    NS_LOG_FUNCTION(this);
    if (m_due == 0)
    {
        return nullptr;
    }
    m_due--;
    return GetInternalQueue(0)->Dequeue();
}

void
LeastLossQueueDisc::CatchUp()
{
    uint64_t ended = Simulator::Now().GetTimeStep() / m_length.GetTimeStep();
    while (m_regulator.slots < ended)
    {
        Close();
    }
}

void
LeastLossQueueDisc::Close()
{
    auto row = bezhantiru_slot_in_place(&m_regulator, m_arrived);
    AbortIfRefused(row.number);
    // That a slot is what its preview says is proved of the library, and looked at all the same.
    NS_ABORT_MSG_IF(m_regulator.admitted != m_admitted || (m_atOnce && row.departed != m_released),
                    "LeastLossQueueDisc: the library has another slot " << m_regulator.slots);
    m_held = bezhantiru_form_fill(row.held_before, row.admitted, row.departed);
    if (m_arrived > 0 || row.held_before > 0)
    {
        m_traceSlot(
            {m_regulator.slots, m_arrived, row.admitted, row.dropped, row.departed, m_held});
    }
    m_due += row.departed - m_released;
    m_arrived = m_released = 0;
    m_open = false;
}

// Of any number of packets the slot admits as many as the headroom has, and of those and the held
// ones as many depart as of 1,000,000.
void
LeastLossQueueDisc::Open()
{
    if (m_open)
    {
        return;
    }
    auto most = bezhantiru_preview(&m_regulator, MOST_ARRIVALS);
    AbortIfRefused(most.number);
    m_open = true;
    m_headroom = most.headroom;
    m_allowance = most.departed;
    m_reason = most.held_before + most.headroom == m_buffer ? BUFFER_DROP : DELAY_DROP;
    if (m_atOnce)
    {
        m_released = std::min(most.held_before, m_allowance);
        m_due += m_released;
    }
}

// A run ends after as many packets as Quota says, 64 by default.
void
LeastLossQueueDisc::Send()
{
    for (uint64_t before = 0; m_due > 0 && m_due != before;)
    {
        before = m_due;
        Run();
    }
}

void
LeastLossQueueDisc::Await()
{
    // Where the table allows nothing in one slot, it allows nothing ever.
    bool departs = m_held > 0 && m_regulator.settings.near_windows[1] > 0;
    if (!m_end.IsRunning() && (m_arrived > 0 || departs))
    {
        Time end = m_length * (m_regulator.slots + 1);
        m_end = Simulator::Schedule(end - Simulator::Now(), &LeastLossQueueDisc::EndOfSlot, this);
    }
}

void
LeastLossQueueDisc::EndOfSlot()
{
    NS_LOG_FUNCTION(this);
    CatchUp();
    if (m_held > 0)
    {
        Open();
    }
    Send();
    Await();
}

} // namespace ns3

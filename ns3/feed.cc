#include "feed.h"

#include "bezhantiru.h"

#include "ns3/object-factory.h"
#include "ns3/packet.h"
#include "ns3/simulator.h"
#include "ns3/string.h"
#include "ns3/uinteger.h"

#include <fstream>
#include <functional>
#include <iostream>
#include <iterator>

namespace feed
{

using namespace ns3;

namespace
{

class Item : public QueueDiscItem
{
  public:
    Item()
        : QueueDiscItem(Create<ns3::Packet>(BYTES), Address(), 0)
    {
    }

    void AddHeader() override
    {
    }

    bool Mark() override
    {
        return false;
    }
};

struct Arrival
{
    Time at;
    size_t slot;
};

std::vector<Arrival>
Arrivals(const std::vector<uint32_t>& counts, const std::string& place)
{
    std::vector<Arrival> arrivals;
    for (size_t slot = 0; slot < counts.size(); slot++)
    {
        for (uint32_t i = 0; i < counts[slot]; i++)
        {
            Time within = place == "spread" ? Time(SLOT.GetTimeStep() * i / counts[slot])
                          : place == "end"  ? SLOT - Time(1)
                                            : Time(0);
            arrivals.push_back({SLOT * slot + within, slot});
        }
    }
    return arrivals;
}

} // namespace

Stream
Read(const std::string& name)
{
    std::ifstream file(name, std::ios::binary);
    std::istreambuf_iterator<char> from(file);
    std::vector<uint8_t> bytes(from, {});
    bytes.reserve(1); // the library wants a pointer, also to no byte
    NS_ABORT_MSG_IF(!file, "the file '" << name << "' could not be read");
    uint32_t refused = bezhantiru_counts_part(bytes.data(), bytes.size()).number;
    NS_ABORT_MSG_IF(refused != 0, "the file '" << name << "': refused " << refused);

    std::vector<uint32_t> numbers(bytes.size() / 4);
    for (size_t i = 0; i < bytes.size(); i++)
    {
        numbers[i / 4] |= uint32_t(bytes[i]) << 8 * (i % 4);
    }
    auto table = numbers.begin() + 5;
    auto slots = table + numbers[0] + 1;
    auto counts = slots + numbers[2];
    Stream stream{numbers[3], numbers[4], {table, slots}, std::vector<uint32_t>(numbers[1])};
    for (; counts != numbers.end(); slots++, counts++)
    {
        stream.arrivals[*slots - 1] = *counts;
    }
    return stream;
}

Ptr<QueueDiscItem>
Packet()
{
    return Create<Item>();
}

Ptr<QueueDisc>
Make(const std::string& type, const Stream& stream)
{
    ObjectFactory factory(type);
    if (type == "ns3::LeastLossQueueDisc")
    {
        std::string table;
        for (uint32_t entry : stream.table)
        {
            table += std::to_string(entry) + " ";
        }
        factory.Set("Table", StringValue(table));
        factory.Set("Delay", UintegerValue(stream.delay));
        factory.Set("Buffer", UintegerValue(stream.buffer));
        factory.Set("Slot", TimeValue(SLOT));
    }
    return factory.Create<QueueDisc>();
}

Rows
Feed(const Stream& stream, Ptr<QueueDisc> disc, const Way& way)
{
    size_t slots = stream.arrivals.size();
    Rows rows{std::vector<uint32_t>(slots), std::vector<uint32_t>(slots), {}, {}};
    disc->SetSendCallback([&](Ptr<QueueDiscItem> item) {
        size_t slot = (Simulator::Now().GetTimeStep() - way.endsSlot) / SLOT.GetTimeStep();
        rows.sent.push_back(Simulator::Now());
        rows.order.push_back(item->GetPacket()->GetUid());
        if (slot < slots)
        {
            rows.departed[slot]++;
        }
    });
    disc->Initialize();

    std::vector<Arrival> arrivals = Arrivals(stream.arrivals, way.place);
    std::function<void(size_t)> schedule;
    auto arrive = [&](size_t i) {
        rows.admitted[arrivals[i].slot] += disc->Enqueue(Packet());
        disc->Run(); // as ns-3's traffic control layer does after each packet
        if (way.chained)
        {
            schedule(i + 1);
        }
    };
    schedule = [&](size_t i) {
        if (i < arrivals.size())
        {
            Simulator::Schedule(arrivals[i].at - Simulator::Now(), [&arrive, i] { arrive(i); });
        }
    };
    for (size_t i = 0; i < (way.chained ? 1 : arrivals.size()); i++)
    {
        schedule(i);
    }
    Simulator::Run();
    return rows;
}

void
Print(const Stream& stream, const Rows& rows)
{
    uint64_t arrived = 0;
    uint64_t admitted = 0;
    uint64_t departed = 0;
    auto line = [](auto first, uint64_t a, uint64_t u, uint64_t v, uint64_t held) {
        std::cout << first << ' ' << a << ' ' << u << ' ' << a - u << ' ' << v << ' ' << held
                  << '\n';
    };
    std::cout << "slot arrived admitted dropped departed held\n";
    for (size_t i = 0; i < stream.arrivals.size(); i++)
    {
        arrived += stream.arrivals[i];
        admitted += rows.admitted[i];
        departed += rows.departed[i];
        line(i + 1, stream.arrivals[i], rows.admitted[i], rows.departed[i], admitted - departed);
    }
    line("total", arrived, admitted, departed, admitted - departed);
}

} // namespace feed

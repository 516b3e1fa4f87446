// What rows do not show of the queue disc: refusals, a device that stops it, a table that lets
// nothing go, long silence.
//     cases NAME
// A case that ends well prints its name; one that is to be refused aborts with the refusal.
#include "bezhantiru.h"
#include "feed.h"

#include "ns3/abort.h"
#include "ns3/drop-tail-queue.h"
#include "ns3/net-device-queue-interface.h"
#include "ns3/simulator.h"
#include "ns3/string.h"

#include <functional>
#include <iostream>
#include <map>

using namespace ns3;

namespace
{

struct Disc
{
    Ptr<QueueDisc> disc;
    uint64_t sent = 0;

    explicit Disc(const std::string& table, uint32_t delay, uint32_t buffer)
        : disc(feed::Make("ns3::LeastLossQueueDisc", {delay, buffer, {}, {}}))
    {
        disc->SetAttribute("Table", StringValue(table));
        disc->SetSendCallback([this](Ptr<QueueDiscItem>) { sent++; });
    }

    void Arrive(uint64_t slot, uint32_t packets)
    {
        Simulator::Schedule(feed::SLOT * (slot - 1), [this, packets] {
            for (uint32_t i = 0; i < packets; i++)
            {
                disc->Enqueue(feed::Packet());
                disc->Run();
            }
        });
    }

    void Run()
    {
        disc->Initialize();
        Simulator::Run();
    }
};

void
Check(bool holds, const char* words)
{
    NS_ABORT_MSG_UNLESS(holds, "not so: " << words);
}

void
SetUp(const std::string& table, uint32_t delay, uint32_t buffer)
{
    Disc(table, delay, buffer).Run();
}

void
NoRoot()
{
    Disc child("0 1", 0, 1);
    child.disc->SetSendCallback(nullptr);
    child.Run();
}

void
SecondQueue()
{
    Disc one("0 1", 0, 1);
    one.disc->AddInternalQueue(CreateObject<DropTailQueue<QueueDiscItem>>());
    one.Run();
}

void
Slot(uint64_t slot, uint32_t packets)
{
    Disc one("0 3", BEZHANTIRU_NO_DELAY, 5);
    one.Arrive(1, 1);
    one.Arrive(slot, packets);
    one.Run();
    Check(one.sent == 1 + std::min(packets, 5U), "what is admitted is sent");
    Check(Simulator::Now() == feed::SLOT * (slot + (packets > 3 ? 1 : 0)),
          "it ends with the last packet");
}

// Six packets in slot 1, four of which depart in slots 1 and 2, to a device that is stopped until
// later.
void
Stopped()
{
    Disc one("0 2 4", BEZHANTIRU_NO_DELAY, 4);
    auto device = CreateObject<NetDeviceQueueInterface>();
    one.disc->SetNetDeviceQueueInterface(device);
    Ptr<NetDeviceQueue> queue = device->GetTxQueue(0);
    queue->SetWakeCallback(MakeCallback(&QueueDisc::Run, one.disc));
    Simulator::ScheduleNow([queue] { queue->Stop(); });
    one.Arrive(1, 6);
    Simulator::Schedule(feed::SLOT * 2.5, [&one] {
        Check(one.sent == 0 && one.disc->GetNPackets() == 4, "released packets are kept");
        Check(one.disc->Enqueue(feed::Packet()), "they count as departed, and make room");
        Check(one.disc->GetNPackets() == 5, "and are there beside the limit");
    });
    Simulator::Schedule(feed::SLOT * 2.6, [queue] { queue->Wake(); });
    Simulator::Schedule(feed::SLOT * 2.7, [&one] {
        Check(one.sent == 4, "the device takes them when it wakes the queue disc");
    });
    one.Run();
    Check(one.sent == 5 && Simulator::Now() == feed::SLOT * 3, "the last one leaves with its slot");
}

void
NothingDeparts()
{
    Disc one("0 0", BEZHANTIRU_NO_DELAY, 3);
    one.Arrive(1, 2);
    one.Arrive(9, 2);
    one.Run();
    Check(one.sent == 0 && one.disc->GetNPackets() == 3, "three are held for ever");
    Check(Simulator::Now() == feed::SLOT * 9, "and nothing waits for them");
}

} // namespace

int
main(int argc, char** argv)
{
    std::map<std::string, std::function<void()>> cases{
        {"no entry", [] { SetUp("", 0, 1); }},
        {"word", [] { SetUp("0 1 x", 0, 1); }},
        {"large word", [] { SetUp("0 99999999999", 0, 1); }},
        {"first entry", [] { SetUp("1 1", 0, 1); }},
        {"large entry", [] { SetUp("0 1000001", 0, 1); }},
        {"falling", [] { SetUp("0 2 1", 0, 1); }},
        {"delay", [] { SetUp("0 1", 65, 1); }},
        {"buffer", [] { SetUp("0 1", 0, 1000001); }},
        {"no limits", [] { SetUp("0 1", BEZHANTIRU_NO_DELAY, BEZHANTIRU_NO_BUFFER); }},
        {"no root", NoRoot},
        {"queue", SecondQueue},
        {"full slot", [] { Slot(2, 1000000); }},
        {"overfull slot", [] { Slot(2, 1000001); }},
        {"last slot", [] { Slot(1000000, 3); }},
        {"held after it", [] { Slot(1000000, 4); }},
        {"slot after it", [] { Slot(1000001, 1); }},
        {"stopped", Stopped},
        {"nothing departs", NothingDeparts},
    };
    auto found = cases.find(argc == 2 ? argv[1] : "");
    NS_ABORT_MSG_IF(found == cases.end(), "there is no such case");
    found->second();
    Simulator::Destroy();
    std::cout << found->first << '\n';
    return 0;
}

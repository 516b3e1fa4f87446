// Packets a second through queue discs that stand alone, in processor time: the arrivals of a
// stream file, over and over, each slot's at its beginning. The rounds take the queue discs in
// turn, and the median of each is told.
//     speed --stream=FILE [--times=50] [--rounds=9] [--ns3::TbfQueueDisc::Rate=4Mbps ..]
#include "feed.h"

#include "ns3/boolean.h"
#include "ns3/command-line.h"
#include "ns3/simulator.h"

#include <algorithm>
#include <ctime>
#include <iostream>

using namespace ns3;

namespace
{

struct Feeder
{
    const feed::Stream& stream;
    Ptr<QueueDisc> disc; // or none
    uint64_t slots;
    uint64_t slot = 0;
    uint64_t fed = 0;

    void Slot()
    {
        for (uint32_t left = stream.arrivals[slot % stream.arrivals.size()]; left > 0; left--)
        {
            auto packet = feed::Packet();
            fed++;
            if (disc)
            {
                disc->Enqueue(packet);
                disc->Run();
            }
        }
        if (++slot < slots)
        {
            Simulator::Schedule(feed::SLOT, &Feeder::Slot, this);
        }
    }
};

struct Tried
{
    std::string name;
    std::string type; // or none
    bool atOnce;
    std::vector<double> seconds = {};
    uint64_t fed = 0;
    uint64_t sent = 0;

    void Run(const feed::Stream& stream, uint64_t slots)
    {
        Ptr<QueueDisc> disc = type.empty() ? nullptr : feed::Make(type, stream);
        sent = 0;
        if (disc)
        {
            disc->SetAttributeFailSafe("AtOnce", BooleanValue(atOnce));
            disc->SetSendCallback([this](Ptr<QueueDiscItem>) { sent++; });
            disc->Initialize();
        }
        Feeder feeder{stream, disc, slots};
        Simulator::ScheduleNow(&Feeder::Slot, &feeder);
        std::clock_t begin = std::clock();
        Simulator::Run();
        seconds.push_back(double(std::clock() - begin) / CLOCKS_PER_SEC);
        fed = feeder.fed;
        Simulator::Destroy();
    }

    double Median()
    {
        auto middle = seconds.begin() + seconds.size() / 2;
        std::nth_element(seconds.begin(), middle, seconds.end());
        return *middle;
    }
};

} // namespace

int
main(int argc, char** argv)
{
    std::string file;
    uint32_t times = 50;
    uint32_t rounds = 9;
    CommandLine cmd(__FILE__);
    cmd.AddValue("stream", "a stream file", file);
    cmd.AddValue("times", "how many times over", times);
    cmd.AddValue("rounds", "how many rounds", rounds);
    cmd.Parse(argc, argv);

    feed::Stream stream = feed::Read(file);
    std::vector<Tried> all{{"none", "", false},
                           {"FIFO", "ns3::FifoQueueDisc", false},
                           {"TBF", "ns3::TbfQueueDisc", false},
                           {"least loss", "ns3::LeastLossQueueDisc", false},
                           {"least loss, at once", "ns3::LeastLossQueueDisc", true}};
    for (uint32_t round = 0; round < rounds; round++)
    {
        for (Tried& tried : all)
        {
            tried.Run(stream, times * stream.arrivals.size());
        }
    }
    std::cout << "| Queue disc | Packets | Sent | Packets a second | ns a packet |\n"
                 "|---|---:|---:|---:|---:|\n";
    for (Tried& tried : all)
    {
        double median = tried.Median();
        std::cout << "| " << tried.name << " | " << tried.fed << " | " << tried.sent << " | "
                  << uint64_t(tried.fed / median) << " | " << uint64_t(median / tried.fed * 1e9)
                  << " |\n";
    }
    return 0;
}

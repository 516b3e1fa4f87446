// Feeds a stream file to a queue disc, and prints its rows as loss-table does, so that `beside`
// judges them and `loss-curve --rows` draws them:
//     rows --stream=FILE
//     rows --stream=FILE --disc=ns3::TbfQueueDisc --ns3::TbfQueueDisc::Rate=4Mbps ..
// Packets have 1,000 bytes and slots 8 ms, so that a packet a slot is 1 Mb/s. What a
// LeastLossQueueDisc tells of itself is compared with what is seen of it.
#include "feed.h"
#include "watch.h"

#include "ns3/boolean.h"
#include "ns3/command-line.h"
#include "ns3/simulator.h"

using namespace ns3;

int
main(int argc, char** argv)
{
    std::string file;
    std::string type = "ns3::LeastLossQueueDisc";
    feed::Way way;
    CommandLine cmd(__FILE__);
    cmd.AddValue("stream", "a stream file", file);
    cmd.AddValue("disc", "the queue disc's type; --ns3::Type::Attribute=.. sets it up", type);
    cmd.AddValue("place", "where in a slot packets arrive: start, spread or end", way.place);
    cmd.AddValue("chained",
                 "an arrival's event is made by the one before, not all beforehand",
                 way.chained);
    cmd.Parse(argc, argv);

    feed::Stream stream = feed::Read(file);
    Ptr<QueueDisc> disc = feed::Make(type, stream);
    if (auto ours = DynamicCast<LeastLossQueueDisc>(disc))
    {
        feed::Watch watch(ours, stream);
        way.endsSlot = !watch.AtOnce();
        feed::Rows rows = feed::Feed(stream, disc, way);
        watch.Compare(rows);
        feed::Print(stream, rows);
    }
    else
    {
        feed::Print(stream, feed::Feed(stream, disc, way));
    }
    disc->Dispose();
    Simulator::Destroy();
    return 0;
}

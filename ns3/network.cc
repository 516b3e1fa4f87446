// The queue disc in a network: bursts of 40 packets every 96 ms, twelve slots, through a link of
// 100 Mb/s to a sink. Prints the slots as they end, and what came through:
//     network [--ns3::LeastLossQueueDisc::AtOnce=true]
#include "least-loss-queue-disc.h"

#include "ns3/applications-module.h"
#include "ns3/core-module.h"
#include "ns3/internet-module.h"
#include "ns3/network-module.h"
#include "ns3/point-to-point-module.h"
#include "ns3/traffic-control-module.h"

#include <iostream>

using namespace ns3;

static void
PrintSlot(const LeastLossQueueDisc::Row& row)
{
    std::cout << row.slot << ' ' << row.arrived << ' ' << row.admitted << ' ' << row.dropped << ' '
              << row.departed << ' ' << row.held << '\n';
}

int
main(int argc, char** argv)
{
    CommandLine(__FILE__).Parse(argc, argv);
    NodeContainer nodes(2);
    PointToPointHelper link;
    link.SetDeviceAttribute("DataRate", StringValue("100Mbps"));
    NetDeviceContainer devices = link.Install(nodes);
    InternetStackHelper().Install(nodes);

    TrafficControlHelper control;
    control.SetRootQueueDisc("ns3::LeastLossQueueDisc",
                             "Table", StringValue("0 6 12 17 22 26 30 34 38 41 44"),
                             "Delay", UintegerValue(7),
                             "Buffer", UintegerValue(36),
                             "Slot", TimeValue(MilliSeconds(8)));
    Ptr<QueueDisc> disc = control.Install(devices.Get(0)).Get(0);
    disc->TraceConnectWithoutContext("Slot", MakeCallback(&PrintSlot));

    Ipv4InterfaceContainer ends = Ipv4AddressHelper("10.1.1.0", "255.255.255.0").Assign(devices);
    OnOffHelper source("ns3::UdpSocketFactory", InetSocketAddress(ends.GetAddress(1), 9));
    source.SetConstantRate(DataRate("400Mbps"), 1000);
    source.SetAttribute("OnTime", StringValue("ns3::ConstantRandomVariable[Constant=0.0008]"));
    source.SetAttribute("OffTime", StringValue("ns3::ConstantRandomVariable[Constant=0.0952]"));
    source.Install(nodes.Get(0)).Stop(Seconds(0.4));
    PacketSinkHelper sink("ns3::UdpSocketFactory", InetSocketAddress(Ipv4Address::GetAny(), 9));
    Ptr<Application> received = sink.Install(nodes.Get(1)).Get(0);

    std::cout << "slot arrived admitted dropped departed held\n";
    Simulator::Run();
    std::cout << "received " << DynamicCast<PacketSink>(received)->GetTotalRx() / 1000 << '\n';
    Simulator::Destroy();
    return 0;
}

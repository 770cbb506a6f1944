// A peer for `./measure subnet --only chain`: messages over a chain of eight nodes in ns-3, each answered, so 14 hops of a packet
// each. ns-3 sends them by UDP over IP. With Debian's libns3-dev:
//
//     g++ -O2 tools/peer.cc -o /tmp/peer -lns3-applications -lns3-internet -lns3-point-to-point -lns3-network -lns3-core
//     time /tmp/peer --messages=10000
#include "ns3/applications-module.h"
#include "ns3/core-module.h"
#include "ns3/internet-module.h"
#include "ns3/network-module.h"
#include "ns3/point-to-point-module.h"
using namespace ns3;
static uint64_t answered = 0;
static void Answered(Ptr<const Packet>) { answered++; }
int main(int argc, char **argv) {
    uint32_t messages = 10000;
    CommandLine cmd;
    cmd.AddValue("messages", "how many", messages);
    cmd.Parse(argc, argv);
    NodeContainer nodes;
    nodes.Create(8);
    InternetStackHelper stack;
    stack.Install(nodes);
    PointToPointHelper line;
    line.SetDeviceAttribute("DataRate", StringValue("1Gbps"));
    line.SetChannelAttribute("Delay", StringValue("1us"));
    Ipv4AddressHelper address;
    Ipv4InterfaceContainer last;
    for (int at = 0; at < 7; at++) {
        std::string net = "10.0." + std::to_string(at) + ".0";
        address.SetBase(net.c_str(), "255.255.255.0");
        last = address.Assign(line.Install(nodes.Get(at), nodes.Get(at + 1)));
    }
    Ipv4GlobalRoutingHelper::PopulateRoutingTables();
    UdpEchoServerHelper server(9);
    server.Install(nodes.Get(7)).Start(Seconds(0));
    UdpEchoClientHelper client(last.GetAddress(1), 9);
    client.SetAttribute("MaxPackets", UintegerValue(messages));
    client.SetAttribute("Interval", TimeValue(MicroSeconds(100)));
    client.SetAttribute("PacketSize", UintegerValue(64));
    ApplicationContainer apps = client.Install(nodes.Get(0));
    apps.Start(Seconds(0.001));
    apps.Get(0)->TraceConnectWithoutContext("Rx", MakeCallback(&Answered));
    Simulator::Run();
    Simulator::Destroy();
    std::cout << answered << " answered\n";
}

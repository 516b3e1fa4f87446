#ifndef FEED_H
#define FEED_H

#include "ns3/nstime.h"
#include "ns3/queue-disc.h"

#include <string>
#include <vector>

/// A stream file fed through a queue disc that stands alone, with no node and no device.
namespace feed
{

/// Of every packet. With slots of 8 ms, a packet a slot is 1 Mb/s.
constexpr uint32_t BYTES = 1000;
const ns3::Time SLOT = ns3::MilliSeconds(8);

/// The numbers of a stream file; docs/FORMAT.md describes it.
struct Stream
{
    uint32_t delay;
    uint32_t buffer;
    std::vector<uint32_t> table;
    std::vector<uint32_t> arrivals; //!< slot after slot
};

/// What was seen of a queue disc from outside.
struct Rows
{
    std::vector<uint32_t> admitted; //!< slot after slot: what Enqueue took
    std::vector<uint32_t> departed; //!< slot after slot: what was sent
    std::vector<ns3::Time> sent;    //!< the instant of each packet, also after the last slot
    std::vector<uint64_t> order;    //!< and its number
};

/// How packets come in their slot, and to which slot those belong that leave as one ends.
struct Way
{
    std::string place = "start"; //!< together at the slot's start or end, or spread evenly over it
    bool chained = false;        //!< an arrival's event made by the one before, not all beforehand
    bool endsSlot = false;       //!< what leaves at a slot's very end belongs to that slot
};

/// Reads a stream file; one that is refused aborts the program.
Stream Read(const std::string& name);

/// A packet that a queue disc takes.
ns3::Ptr<ns3::QueueDiscItem> Packet();

/// A queue disc of this type, as its attributes' defaults say; a LeastLossQueueDisc as the stream
/// does.
ns3::Ptr<ns3::QueueDisc> Make(const std::string& type, const Stream& stream);

/// Feeds all arrivals, and lets the simulation run until it ends by itself.
Rows Feed(const Stream& stream, ns3::Ptr<ns3::QueueDisc> disc, const Way& way);

/// Prints rows as loss-table does.
void Print(const Stream& stream, const Rows& rows);

} // namespace feed

#endif

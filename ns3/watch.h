#ifndef WATCH_H
#define WATCH_H

#include "feed.h"
#include "least-loss-queue-disc.h"

#include <vector>

namespace feed
{

/// What a LeastLossQueueDisc tells of itself, by its trace sources and statistics, and what it
/// promises of time.
class Watch
{
  public:
    Watch(ns3::Ptr<ns3::LeastLossQueueDisc> disc, const Stream& stream);

    bool AtOnce() const;

    /// Aborts the program where anything told or promised is not what was seen from outside.
    void Compare(const Rows& seen) const;

  private:
    void CompareSlots(const Rows& seen) const;
    void CompareDrops(const Rows& seen) const;
    void CompareTimes(const Rows& seen) const;
    void CompareWindows(const Rows& seen) const;

    ns3::Ptr<ns3::LeastLossQueueDisc> m_disc;
    const Stream& m_stream;
    std::vector<ns3::LeastLossQueueDisc::Row> m_slots; //!< as the trace source Slot has them
    ns3::Time m_longest;                               //!< stay of a packet
    uint32_t m_fullest;                                //!< packets in the queue disc
};

} // namespace feed

#endif

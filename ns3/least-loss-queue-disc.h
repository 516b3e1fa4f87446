#ifndef LEAST_LOSS_QUEUE_DISC_H
#define LEAST_LOSS_QUEUE_DISC_H

#include "bezhantiru.h"

#include "ns3/event-id.h"
#include "ns3/nstime.h"
#include "ns3/queue-disc.h"
#include "ns3/traced-callback.h"

#include <string>

namespace ns3
{

/**
 * \ingroup traffic-control
 *
 * \brief The proved least-loss regulator as a root queue disc
 *
 * It counts packets, not bytes: what their sizes are plays no part. It takes no classes, no filters
 * and no queue but its own, and is the root of its device.
 *
 * Slot t is the time from (t - 1) * Slot up to, and without, t * Slot; slot 1 begins at time 0. A
 * packet is admitted while the headroom of its slot lasts, and is else dropped before it is
 * enqueued: for the "Buffer limit" where the packets held before the slot and those admitted in it
 * fill the buffer, for the "Delay limit" otherwise. What departs in a slot leaves in the order in
 * which it was admitted. With f for the closed envelope, d for Delay and q for Buffer:
 *
 * - By default it leaves at the slot's end, all at the instant t * Slot. A half-open time of k
 *   slots has k such instants, so that at most f(k) packets leave in it. A packet stays at most
 *   d + 1 slots: d whole ones, and what was left of its own. There are never more than q packets in
 *   the queue disc.
 * - With AtOnce it leaves as early as the slot's counts allow: held packets at the slot's
 *   beginning, others as they arrive. A packet then stays at most d slots, and there are never more
 *   than q packets either. But a time as long as k slots that begins inside a slot touches k + 1
 *   slots, and what departs in the first of them may leave at its end, and what departs in the last
 *   at its beginning: in continuous time the envelope holds as f(k + 1).
 *
 * The counts of all slots are the same both ways.
 *
 * A device that stops the queue disc finds what has been released still there when it wakes it, and
 * takes it in its own time. Such packets have departed: they count neither for the envelope nor for
 * the limits, so that they stay longer, and add to the packets in the queue disc.
 *
 * No event waits while there is nothing to wait for, so that a simulation ends by itself. What the
 * library refuses, in the attributes or in a slot, aborts the simulation with its number: 8 at the
 * end of a slot with more than 1,000,000 arrivals, 9 for the first packet that comes after slot
 * 1,000,000 or is still held then.
 */
class LeastLossQueueDisc : public QueueDisc
{
  public:
    /// The counts of a slot.
    struct Row
    {
        uint64_t slot;     //!< the slot, from 1 on
        uint64_t arrived;  //!< packets in this slot
        uint64_t admitted; //!< packets in this slot
        uint64_t dropped;  //!< packets in this slot
        uint64_t departed; //!< packets in this slot
        uint64_t held;     //!< packets after it
    };

    /**
     * \brief Get the type ID.
     * \return the object TypeId
     */
    static TypeId GetTypeId();

    LeastLossQueueDisc();

    /**
     * \brief Signature of the trace source Slot
     * \param row the counts of a slot that has ended
     */
    typedef void (*RowTracedCallback)(const Row& row);

    // Reasons for dropping packets
    static constexpr const char* BUFFER_DROP = "Buffer limit"; //!< The buffer is full
    static constexpr const char* DELAY_DROP = "Delay limit";   //!< It could not leave in time

  protected:
    void DoDispose() override;

  private:
    bool DoEnqueue(Ptr<QueueDiscItem> item) override;
    Ptr<QueueDiscItem> DoDequeue() override;
    bool CheckConfig() override;
    void InitializeParams() override;

    /// Take every slot that has ended.
    void CatchUp();
    /// Take the open slot, which has ended.
    void Close();
    /// Ask what the open slot admits and lets depart, once.
    void Open();
    /// Send what has been released, until the device stops it.
    void Send();
    /// Have the open slot's end waited for where something can come of it.
    void Await();
    /// The event at a slot's end.
    void EndOfSlot();

    std::string m_table; //!< Attribute Table
    uint32_t m_delay;    //!< Attribute Delay
    uint32_t m_buffer;   //!< Attribute Buffer
    Time m_length;       //!< Attribute Slot
    bool m_atOnce;       //!< Attribute AtOnce

    bezhantiru_regulator m_regulator; //!< After the slots that were taken
    uint64_t m_admitted;              //!< Packets admitted so far, counted here
    uint64_t m_held;                  //!< Packets held before the open slot
    bool m_open;                      //!< Whether the numbers below are the open slot's
    uint64_t m_headroom;              //!< Packets that it admits
    uint64_t m_allowance;             //!< The most that may depart in it
    const char* m_reason;             //!< Why it drops any others
    uint64_t m_arrived;               //!< Packets in it so far
    uint64_t m_released;              //!< Packets in it so far, with AtOnce
    uint64_t m_due;                   //!< Packets released and not yet dequeued
    EventId m_end;                    //!< The end of the open slot

    TracedCallback<const Row&> m_traceSlot; //!< Trace source Slot
};

} // namespace ns3

#endif /* LEAST_LOSS_QUEUE_DISC_H */

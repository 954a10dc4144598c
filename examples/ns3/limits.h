/* This library's queue limit as a queue limit of ns-3 (ns3::QueueLimits), and a comparison of the two. */
#ifndef FINTAQUSH_NS3_LIMITS_H
#define FINTAQUSH_NS3_LIMITS_H

#include <cstdlib>
#include <fintaqush.h>
#include <iostream>
#include <ns3/dynamic-queue-limits.h>
#include <ns3/nstime.h>
#include <ns3/queue-limits.h>
#include <ns3/simulator.h>

/* Ends the program if a call returns a status that isn't possible here. */
inline void must(const char *what, uint32_t said, uint32_t wanted = FQ_OK) {
    if (said == wanted) return;
    std::cerr << what << ": " << fq_status_name(said) << "\n";
    std::exit(1);
}

/* The library's limit as a queue limit of ns-3. Its clock may be any: here it is ns-3's, in nanoseconds. */
class FintaqushLimits : public ns3::QueueLimits {
  public:
    FintaqushLimits(uint32_t min, uint32_t max, ns3::Time hold) {
        must("limit", fq_dql_init(&dql, min, max, static_cast<uint64_t>(hold.GetNanoSeconds()), now()));
    }

    void Reset() override { fq_dql_reset(&dql, now()); }
    void Queued(uint32_t count) override { must("queued", fq_dql_queued(&dql, count)); }
    void Completed(uint32_t count) override { must("completed", fq_dql_completed(&dql, count, now())); }
    int32_t Available() const override { return static_cast<int32_t>(fq_dql_avail(&dql)); }
    uint32_t Limit() const { return fq_dql_limit(&dql); }

  private:
    static uint64_t now() { return static_cast<uint64_t>(ns3::Simulator::Now().GetNanoSeconds()); }

    fq_dql dql{};
};

/* A queue limit that counts its calls and, if there is a stream, writes each call with the bytes available after it. */
class ToldLimits : public ns3::QueueLimits {
  public:
    ToldLimits(ns3::Ptr<ns3::QueueLimits> limits, std::ostream *calls) : limits(limits), calls(calls) {}

    void Reset() override { limits->Reset(); }
    int32_t Available() const override { return limits->Available(); }

    void Queued(uint32_t count) override {
        limits->Queued(count);
        in_flight += count;
        tell("queued", count);
    }

    void Completed(uint32_t count) override {
        limits->Completed(count);
        in_flight -= count;
        tell("completed", count);
    }

    /* Returns the limit: the bytes available plus those in flight. */
    int64_t Limit() const { return limits->Available() + in_flight; }
    uint64_t Stops() const { return stops; }

  private:
    void tell(const char *what, uint32_t count) {
        stops += what[0] == 'q' && limits->Available() < 0;
        if (calls) *calls << ns3::Simulator::Now().GetNanoSeconds() << " " << what << " " << count << " " << limits->Available() << "\n";
    }

    ns3::Ptr<ns3::QueueLimits> limits;
    std::ostream *calls;
    int64_t in_flight = 0;
    uint64_t stops = 0;
};
#endif

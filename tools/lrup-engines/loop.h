// Unverified, like the whole solver. The loop of a first process: it waits for events, handles
// them, and waits again.
#ifndef LOOP_H
#define LOOP_H

#include <poll.h>

#include "solve.h"

class Loop {
  public:
    int ended_by = 0;         // the signal that ends the run
    bool polls_only = false;  // the next wait returns at once

    void begin();  // takes signals from now on
    // Waits for a signal, the end of a child, an event of engines and filters, or input from these
    // files, until that time at the latest.
    void wait(EventCount &events, std::vector<pollfd> &files, double time,
              const std::vector<Child *> &children);

  private:
    int signals = -1;
    uint64_t seen = 0;  // the count of events

    void take_signals(const std::vector<Child *> &children);
};

#endif

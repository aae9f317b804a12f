// poll.dlm with a step that clears the fact that it sets. The text is refused:
// nearly always a step that sets the fact and another that clears it are meant.

library pulse "a device that is polled, and a line that is raised and lowered";

fact ready  "the device was seen to be ready";
fact locked "the device is locked for this test";
fact raised "the line is raised";

step poll      { needs locked; }
step see_ready { needs locked; sets ready; }
step unlock    { clears locked, raised; }
step pulse     { sets raised; clears raised; }

sequence wait "polls until the device is ready" {
    alternative again { poll; wait; }
    alternative done  { see_ready; }
}

sequence finish "waits and unlocks, or waits for ever" {
    alternative { wait; unlock; }
    alternative { hang; }
}

sequence hang "polls for ever" {
    alternative { poll; hang; }
}

sequence attempts "pulses the line and waits, any number of times" {
    alternative once  { pulse; wait; }
    alternative twice { attempts; attempts; }
    alternative none  { }
}

// Sequences that call themselves: their runs are without number.

library poll "a device that is polled";

fact ready  "the device was seen to be ready";
fact locked "the device is locked for this test";
fact raised "the line is raised";

step poll      { needs locked; }
step see_ready { needs locked; sets ready; }
step unlock    { clears locked, raised; }
step raise     { sets raised; }

sequence wait "polls until the device is ready" {
    always needs locked;
    always sets ready;
    alternative again { poll; wait; }
    alternative done  { see_ready; }
}

sequence finish "waits and unlocks, or waits for ever" {
    always clears locked, raised;
    always stands ready;
    alternative { wait; unlock; }
    alternative { hang; } // has no run, and counts for nothing
}

sequence hang "polls for ever" {
    alternative { poll; hang; }
}

sequence attempts "raises the line and waits, any number of times" {
    never clears ready, locked, raised;
    alternative once  { raise; wait; }
    alternative twice { attempts; attempts; }
    alternative none  { }
}

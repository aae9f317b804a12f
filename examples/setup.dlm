// The library with which README.md begins. Whoever wrote the vendor's card
// passed over the second alternative of setup.

library setup "delay unit and measurement";

fact granted "the bus is granted";
fact unit_ps "delays are in picoseconds";
fact stored  "a measurement is stored";

step request { sets granted; }
step unit    { needs granted; sets unit_ps; }
step release { needs granted; clears granted; }
step measure { needs granted, unit_ps; sets stored; }

sequence setup "sets the unit, unless setup is thought done" {
    // "always sets unit_ps" fails here: the vendor's card said so
    alternative run  { request; unit; release; }
    alternative done { }
}

sequence full_setup "setup that is never skipped" {
    always sets unit_ps;
    alternative { request; unit; release; }
}

sequence measurement "measures after a setup that can be skipped" {
    always sets stored;
    always stands unit_ps; // the measurement needs it, whoever has set it
    alternative { setup; request; measure; release; }
}

sequence sure_measurement "measures after a setup that cannot" {
    always sets unit_ps, stored;
    never needs unit_ps;
    alternative { full_setup; request; measure; release; }
}

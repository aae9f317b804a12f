// The library of the letter: "Your card says the setup sequence always leaves
// delays in picoseconds. Our block counted nanoseconds, and every setup
// violation passed simulation." The claim below is what the card said.

library letter "the setup sequence of a letter";

fact granted "the bus is granted";
fact unit_ps "delays are in picoseconds";

step request { sets granted; }
step unit    { needs granted; sets unit_ps; }
step release { needs granted; clears granted; }

sequence setup "sets the unit, unless setup is thought done" {
    always sets unit_ps;
    alternative run  { request; unit; release; }
    alternative done { }
}

// Document 01's library L, word by word in docs/IMAGES.md. It has numbers
// alone there; the names are made up.

library l "document 01's library L";

fact open  "the channel is open";
fact sent  "a frame is sent";
fact spare "no step names it";

step connect { sets open; }
step send    { needs open; sets sent; }
step recall  { clears sent; } // stands in no sequence

sequence prepare "opens the channel, unless it is thought open" {
    alternative opened { connect; }
    alternative passed { }
}

sequence transmit "sends a frame, however the channel was prepared" {
    always sets sent;
    always stands open, sent;
    alternative { prepare; send; }
}

sequence forever "calls itself and nothing else, so that it has no run" {
    alternative { forever; }
}

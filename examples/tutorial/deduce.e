load predict.e

!HoldsAt(Open(Front),2).

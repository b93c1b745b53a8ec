load door.e

; Only a locked door is unlocked; only an unlocked door that is closed is pushed.
Happens(Unlock(door),time) -> HoldsAt(Locked(door),time).
Happens(Push(door),time) -> !HoldsAt(Locked(door),time) & !HoldsAt(Open(door),time).

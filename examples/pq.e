; Two statements of which the one leads to the other: three cases are left.
predicate P()
predicate Q()
P() -> Q().

predicate P()
predicate Q()
P() -> Q().

load explain.e
load rules.e

cnf(a,plain,p(a)).
cnf(b,plain,~ p(X) | q(X)).
cnf(c,plain,~ q(a)).

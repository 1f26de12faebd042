// Prints what CaDiCaL's library calls itself: its version, but sc2021 of 1.5.3 and others, after a
// competition.
#include <cadical.hpp>

#include <cstdio>

int main() { return puts(CaDiCaL::Solver::version()) < 0; }

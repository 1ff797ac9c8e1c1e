// The C functions of include/riftkettle.h.
use interface::asks;

interface::riftkettle_functions!(asks);

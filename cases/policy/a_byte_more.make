2097085 " "
1 "<RMAssertion xmlns='http://docs.oasis-open.org/ws-rx/wsrmp/200702'/>"

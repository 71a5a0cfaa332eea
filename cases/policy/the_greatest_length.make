2097084 " "
1 "<RMAssertion xmlns='http://docs.oasis-open.org/ws-rx/wsrmp/200702'/>"

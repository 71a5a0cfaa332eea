2097105 " "
1 "<Policy xmlns='http://www.w3.org/ns/ws-policy'/>"

2097043 " "
1 "<pair><Policy xmlns='http://www.w3.org/ns/ws-policy'/><Policy xmlns='http://www.w3.org/ns/ws-policy'/></pair>"

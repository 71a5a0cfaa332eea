1 "<?xml version=\"1.0\" encoding=\"UTF-8\"?><!-- x --><S:Envelope xmlns:S='http://www.w3.org/2003/05/soap-envelope'\n xmlns:wsa=\"http://www.w3.org/2005/08/addressing\" xmlns:rm=\"http://docs.oasis-open.org/ws-rx/wsrm/200702\" xmlns:o=\"urn:o\"\n><S:Header><wsa:Action S:mustUnderstand=\"1\">urn:buy&amp;sell</wsa:Action><rm:Sequence S:mustUnderstand=\"1\"\n><rm:Identifier>urn:q</rm:Identifier><rm:MessageNumber> 07 </rm:MessageNumber></rm:Sequence></S:Header><S:Body><o:x"
20000 " a{n}=\"\""
1 "/></S:Body></S:Envelope>\n"

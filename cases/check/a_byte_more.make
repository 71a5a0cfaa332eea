1 "<Envelope xmlns='http://www.w3.org/2003/05/soap-envelope'><Header><Action xmlns='http://www.w3.org/2005/08/addressing'>urn:a</Action></Header><Body><a/></Body></Envelope>"
2096983 " "

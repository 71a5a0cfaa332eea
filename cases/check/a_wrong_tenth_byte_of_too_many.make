1 "<Envelope<"
2097143 " "

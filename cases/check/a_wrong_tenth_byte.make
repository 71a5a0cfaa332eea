1 "<Envelope<"
2097142 " "

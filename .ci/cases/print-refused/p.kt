kind k

// a list made of objects: an end, and links in front of it
let end = [; sum(self) = 0, print_all(self) = 0] in
let lists = [;
  link(self, first, others) = [
    first = first, others = others;
    sum(node) = node.first + node.others.sum(),
    print_all(node) = print(node.first); node.others.print_all()
  ]
] in
let list = lists.link(3, lists.link(1, lists.link(4, end))) in
list.print_all();
list.others.first := 10;
print(list.sum())

// three philosophers share three forks, and each takes the left one first: in one order of many they all wait
let fork = [;
  run(self) = repeat(self.turn()),
  turn(self) = serve(take); serve(put),
  take(self) = 0,
  put(self) = 0
] in
let thinker = [;
  dine(self, left, right) =
    waitall(group(left.take())); waitall(group(right.take()));
    left.put(); right.put(); echo("ate")
] in
let fork1 = active(fork, run) in
let fork2 = active(fork, run) in
let fork3 = active(fork, run) in
let first = active(thinker) in
let second = active(thinker) in
let third = active(thinker) in
first.dine(fork1, fork2); second.dine(fork2, fork3); third.dine(fork3, fork1)

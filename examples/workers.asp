// each of three workers has a question of its own, and then all have the same
let worker = [
  asked = 0;
  square(self, n) = self.asked := self.asked + 1; n * n,
  how_often(self) = self.asked
] in
let sum = [;
  of(self, numbers) = self.from(numbers, 0),
  from(self, numbers, k) =
    if (k == size(numbers)) { 0 } else { member(numbers, k) + self.from(numbers, k + 1) }
] in
let workers = group(active(worker), active(worker), active(worker)) in
let squares = scatter(workers, square, group(2, 3, 4)) in
echo("asked");
print(sum.of(squares));
workers.square(10);
print(sum.of(waitall(workers.how_often())))

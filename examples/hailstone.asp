// halve an even number, and take three times an odd one and 1 more, until 1 is reached:
// how many steps from 27, and the greatest number on the way
let walk = [
  steps = 0, greatest = 0;
  from(self, n) =
    if (self.greatest < n) { self.greatest := n } else { self };
    if (n == 1) { self.steps }
    else {
      self.steps := self.steps + 1;
      if (n % 2 == 0) { self.from(n / 2) } else { self.from(3 * n + 1) }
    }
] in
print(walk.from(27));
print(walk.greatest)

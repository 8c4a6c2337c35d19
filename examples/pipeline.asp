// three activities in a row: each answer is passed on before anyone has computed it
let double = active([; of(self, n) = n * 2]) in
let next = active([; of(self, n) = n + 1]) in
let square = active([; of(self, n) = n * n]) in
let answer = square.of(next.of(double.of(5))) in
echo("asked");
print(answer)

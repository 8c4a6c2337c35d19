// an office hands on a letter that is still being written, and never reads it
let author = active([; write(self, pages) = [pages = pages]]) in
let reader = active([; read(self, letter) = print(letter.pages)]) in
let office = active([; send(self, letter) = reader.read(letter)]) in
print(office.send(author.write(3)))

.org x

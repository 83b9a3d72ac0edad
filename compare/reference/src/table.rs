//! The working table of a quadratic form: place 0 for the constant, place i + 1 for variable i.

/// The count of numbers that a lent table must have.
pub const NUMBERS: usize = 4_225;

/// The first (N + 1)² numbers, row by row.
pub struct Table {
    pub side: usize,
    pub numbers: Vec<i64>,
}

impl Table {
    pub fn new(variables: usize) -> Table {
        let side = variables + 1;
        Table { side, numbers: vec![0; side * side] }
    }

    pub fn at(&self, i: usize, j: usize) -> i64 {
        self.numbers[i * self.side + j]
    }

    fn add(&mut self, i: usize, j: usize, c: i64) {
        self.numbers[i * self.side + j] += c;
    }

    pub fn add_constant(&mut self, c: i64) {
        self.add(0, 0, 2 * c);
    }

    /// Adds c z_i.
    pub fn add_linear(&mut self, i: usize, c: i64) {
        self.add(0, i + 1, c);
        self.add(i + 1, 0, c);
    }

    /// Adds c z_i z_j; the square of z_i when i = j.
    pub fn add_product(&mut self, i: usize, j: usize, c: i64) {
        self.add(i + 1, j + 1, c);
        self.add(j + 1, i + 1, c);
    }

    /// Subtracts w v_i v_j at each (i,j).
    pub fn subtract_square(&mut self, w: i64, v: &[i16]) {
        let v = &v[..self.side];
        for (row, &a) in self.numbers.chunks_exact_mut(self.side).zip(v) {
            let wa = w * a as i64;
            for (number, &b) in row.iter_mut().zip(v) {
                *number -= wa * b as i64;
            }
        }
    }

    /// Whether every diagonal entry is at least the sum of the absolute values of the others in its row.
    pub fn dominant(&self) -> bool {
        self.numbers.chunks_exact(self.side).enumerate().all(|(i, row)| {
            let all: i64 = row.iter().map(|number| number.abs()).sum();
            row[i] >= all - row[i].abs()
        })
    }

    /// Writes the numbers to the front of the lent table; the rest keep their values.
    pub fn write(&self, lent: &mut [i64]) {
        lent[..self.numbers.len()].copy_from_slice(&self.numbers);
    }
}

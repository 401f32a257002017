//! The cabinet: shapes, boards and their faults, moves, distance, and the parity that tells a board apart from the goal.

/// Width and height, each 2 to 4.
#[derive(Clone, Copy, Debug, PartialEq, Eq)]
pub struct Shape {
    pub width: usize,
    pub height: usize,
}

/// The nine shapes that a cabinet can have.
pub const SHAPES: [Shape; 9] = [
    Shape { width: 2, height: 2 },
    Shape { width: 3, height: 2 },
    Shape { width: 4, height: 2 },
    Shape { width: 2, height: 3 },
    Shape { width: 3, height: 3 },
    Shape { width: 4, height: 3 },
    Shape { width: 2, height: 4 },
    Shape { width: 3, height: 4 },
    Shape { width: 4, height: 4 },
];

/// Cells of the largest cabinet.
pub const MOST_CELLS: usize = 16;

/// The empty cell goes up, left, right or down.
pub const MOVES: [u8; 4] = [0, 1, 2, 3];

/// A board of some shape, with the place of its empty cell beside it. Bytes beyond the shape's cells are 0.
#[derive(Clone, Copy, Debug, PartialEq, Eq, Hash)]
pub struct Board {
    pub cells: [u8; MOST_CELLS],
    pub empty: u8,
}

/// What is wrong with a width, a height and a board: refusals 1 to 4.
#[derive(Clone, Copy, Debug, PartialEq, Eq)]
pub enum Fault {
    Shape,
    Length,
    Value { cell: usize },
    Repeated { cell: usize },
}

impl Fault {
    pub fn number(self) -> u8 {
        match self {
            Fault::Shape => 1,
            Fault::Length => 2,
            Fault::Value { .. } => 3,
            Fault::Repeated { .. } => 4,
        }
    }

    pub fn cell(self) -> usize {
        match self {
            Fault::Shape | Fault::Length => 0,
            Fault::Value { cell } | Fault::Repeated { cell } => cell,
        }
    }
}

impl Shape {
    pub fn cells(self) -> usize {
        self.width * self.height
    }

    pub fn goal(self) -> Board {
        let mut cells = [0; MOST_CELLS];
        for (cell, value) in cells.iter_mut().enumerate().take(self.cells()) {
            *value = cell as u8;
        }
        Board { cells, empty: 0 }
    }

    /// Rows plus columns between two cells.
    pub fn apart(self, a: usize, b: usize) -> usize {
        (a / self.width).abs_diff(b / self.width) + (a % self.width).abs_diff(b % self.width)
    }

    /// Where a move takes the empty cell, if it stays on the grid.
    pub fn neighbour(self, cell: usize, to: u8) -> Option<usize> {
        let (row, column) = (cell / self.width, cell % self.width);
        match to {
            0 if row > 0 => Some(cell - self.width),
            1 if column > 0 => Some(cell - 1),
            2 if column + 1 < self.width => Some(cell + 1),
            3 if row + 1 < self.height => Some(cell + self.width),
            _ => None,
        }
    }
}

impl Board {
    /// The board after a move, if it is legal.
    pub fn after(&self, shape: Shape, to: u8) -> Option<Board> {
        shape.neighbour(self.empty as usize, to).map(|place| self.with_empty_at(place))
    }

    /// The board with the tray of another cell slid to where the empty one was.
    pub fn with_empty_at(&self, place: usize) -> Board {
        let mut next = *self;
        next.cells[self.empty as usize] = self.cells[place];
        next.cells[place] = 0;
        next.empty = place as u8;
        next
    }

    /// The sum over all trays of the way to their own cell.
    pub fn distance(&self, shape: Shape) -> usize {
        let trays = self.cells[..shape.cells()].iter().enumerate().filter(|(_, &value)| value != 0);
        trays.map(|(cell, &value)| shape.apart(cell, value as usize)).sum()
    }

    /// Whether inversions, with 0 as a value, and the empty cell's row and column make an odd sum. Every move keeps this.
    pub fn is_odd(&self, shape: Shape) -> bool {
        let cells = &self.cells[..shape.cells()];
        let inversions: usize =
            (0..cells.len()).map(|i| cells[i + 1..].iter().filter(|&&later| later < cells[i]).count()).sum();
        let empty = self.empty as usize;
        (inversions + empty / shape.width + empty % shape.width) % 2 == 1
    }
}

/// The shape and the board that a caller's numbers and bytes give, or the first fault of them.
pub fn read(width: u32, height: u32, bytes: &[u8]) -> Result<(Shape, Board), Fault> {
    if !(2..=4).contains(&width) || !(2..=4).contains(&height) {
        return Err(Fault::Shape);
    }
    let shape = Shape { width: width as usize, height: height as usize };
    if bytes.len() != shape.cells() {
        return Err(Fault::Length);
    }
    if let Some(cell) = bytes.iter().position(|&value| value as usize >= shape.cells()) {
        return Err(Fault::Value { cell });
    }
    if let Some(cell) = (0..bytes.len()).find(|&cell| bytes[..cell].contains(&bytes[cell])) {
        return Err(Fault::Repeated { cell });
    }
    let mut cells = [0; MOST_CELLS];
    cells[..bytes.len()].copy_from_slice(bytes);
    let empty = bytes.iter().position(|&value| value == 0).unwrap() as u8;
    Ok((shape, Board { cells, empty }))
}

//! Commands, and the three kinds of machine that run them.

/// What a member is told to do.
#[derive(Clone, Copy, Debug, PartialEq, Eq)]
pub enum Command {
    Set { axis: u8, value: u32 },
    Shift { axis: u8, amount: u32 },
    Couple { from: u8, to: u8 },
    Mark { code: u32 },
}

impl Command {
    /// Class, first and second, as a recorder keeps them.
    pub fn numbers(self) -> [u32; 3] {
        match self {
            Command::Set { axis, value } => [1, axis.into(), value],
            Command::Shift { axis, amount } => [2, axis.into(), amount],
            Command::Couple { from, to } => [3, from.into(), to.into()],
            Command::Mark { code } => [4, code, 0],
        }
    }

    /// The axis that the command writes.
    fn writes(self) -> Option<u8> {
        match self {
            Command::Set { axis, .. } | Command::Shift { axis, .. } => Some(axis),
            Command::Couple { to, .. } => Some(to),
            Command::Mark { .. } => None,
        }
    }

    /// Whether the command reads or writes the axis.
    fn touches(self, axis: u8) -> bool {
        self.writes() == Some(axis) || matches!(self, Command::Couple { from, .. } if from == axis)
    }
}

/// The kind of all machines of a line.
#[derive(Clone, Copy, Debug, PartialEq, Eq)]
pub enum Kind {
    AxisBank,
    Recorder,
    Tally,
}

impl Kind {
    /// Whether two commands have to run in one order everywhere.
    pub fn conflict(self, a: Command, b: Command) -> bool {
        let meets = |x: Command, y: Command| x.writes().is_some_and(|axis| y.touches(axis));
        match (self, a, b) {
            (Kind::Recorder, _, _) => true,
            (Kind::Tally, _, _) => false,
            (Kind::AxisBank, Command::Shift { .. }, Command::Shift { .. }) => false,
            (Kind::AxisBank, _, _) => meets(a, b) || meets(b, a),
        }
    }
}

/// The cells behind a station.
#[derive(Clone, Debug)]
pub struct Machine {
    kind: Kind,
    cells: Vec<u32>,
}

impl Machine {
    /// A machine at its starting cells, all 0.
    pub fn start(kind: Kind) -> Machine {
        let count = match kind {
            Kind::AxisBank => 8,
            Kind::Recorder => 25,
            Kind::Tally => 4,
        };
        Machine { kind, cells: vec![0; count] }
    }

    pub fn cells(&self) -> &[u32] {
        &self.cells
    }

    /// Moves the cells on by one command.
    pub fn run(&mut self, command: Command) {
        match self.kind {
            Kind::AxisBank => self.run_on_bank(command),
            Kind::Recorder => {
                self.cells[0] = self.cells[0].wrapping_add(1);
                self.cells.splice(1..1, command.numbers());
                self.cells.truncate(25);
            }
            Kind::Tally => {
                let cell = &mut self.cells[command.numbers()[0] as usize - 1];
                *cell = cell.wrapping_add(1);
            }
        }
    }

    /// An axis that the bank does not have makes the whole command do nothing.
    fn run_on_bank(&mut self, command: Command) {
        let position = |axis: u8| self.cells.get(usize::from(axis)).copied();
        let moved = match command {
            Command::Set { axis, value } => Some((axis, value)),
            Command::Shift { axis, amount } => {
                position(axis).map(|p| (axis, p.wrapping_add(amount)))
            }
            Command::Couple { from, to } => position(from).map(|p| (to, p)),
            Command::Mark { .. } => None,
        };
        if let Some((axis, value)) = moved {
            if let Some(cell) = self.cells.get_mut(usize::from(axis)) {
                *cell = value;
            }
        }
    }
}

//! The list of an accepted road, in one walk along the three lists.

use std::io::{self, Write};

use crate::decimal::Pen;
use crate::limits::Row;
use crate::read::Alignment;
use crate::walk::{CrossfallCursor, PlanCursor, ProfileCursor, Stretch, LINE_MAX};

const BUFFER: usize = 65_536;

struct Output<'a, W: Write> {
    sink: &'a mut W,
    buffer: Box<[u8]>,
    used: usize,
}

impl<W: Write> Output<'_, W> {
    #[inline(always)]
    fn row(&mut self, stretch: &Stretch, s: i64, curvature: i128) -> io::Result<()> {
        if BUFFER - self.used < LINE_MAX {
            self.flush()?;
        }
        let base = self.buffer.as_mut_ptr();
        // SAFETY: used + LINE_MAX is at most BUFFER, the buffer's length.
        unsafe {
            let mut pen = Pen::at(base.add(self.used));
            stretch.row(&mut pen, s, curvature);
            self.used = pen.place().offset_from(base) as usize;
        }
        Ok(())
    }

    fn flush(&mut self) -> io::Result<()> {
        self.sink.write_all(&self.buffer[..self.used])?;
        self.used = 0;
        Ok(())
    }
}

/// Writes the rows of all listed stations, in order. The road passed every rule, with this row.
pub fn list<W: Write>(road: &Alignment, row: &Row, sink: &mut W) -> io::Result<()> {
    let total = road.total();
    let step = road.step as i64;
    let mut plan = PlanCursor::new(road);
    let mut profile = ProfileCursor::new(road);
    let mut crossfall = CrossfallCursor::new(road, row.lane);
    let mut out = Output {
        sink,
        buffer: vec![0; BUFFER].into_boxed_slice(),
        used: 0,
    };

    let mut multiple = 0; // the least multiple of step not yet listed
    let mut joint = 0; // the last joint listed
    while joint < total {
        plan.advance(joint);
        profile.advance(joint);
        crossfall.advance(joint);
        joint = plan.end.min(profile.end).min(crossfall.end);
        let stretch = Stretch {
            profile: profile.now,
            left: crossfall.left,
            right: crossfall.right,
        };
        let mut curvature = plan.curvature.sum(multiple);
        let growth = plan.curvature.slope.wrapping_mul(step as i128);
        while multiple < joint {
            out.row(&stretch, multiple, curvature)?;
            multiple += step;
            curvature = curvature.wrapping_add(growth);
        }
        out.row(&stretch, joint, plan.curvature.sum(joint))?;
        if multiple == joint {
            multiple += step;
        }
    }
    out.flush()
}

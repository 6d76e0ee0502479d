//! What each command does.

use crate::arguments::{Command, Job};
use crate::drawing::{Drawing, Shape};
use crate::failure::Failure;
use crate::forms::Point;
use crate::picture::Picture;
use crate::progress::Progress;
use crate::{output, points};
use contour_band::{foretell, Band, Judgement, Refusal};
use std::fs::File;
use std::io::{self, BufWriter, Write};

/// A point and what judging says of it.
pub type Judged = (Point, Result<Judgement, Refusal>);

/// Does a job. The exit status: 0, or 1 where a point is off or no tolerance has so few leaves, or 2 where a point is
/// refused.
pub fn run(job: &Job) -> Result<u8, Failure> {
    let drawing = Drawing::read(
        &job.outline,
        job.command != Command::Tightest && job.options.tolerance.is_none(),
        job.options.binary64,
    )?;
    match job.command {
        Command::Band => band(job, &drawing),
        Command::Inspect => inspect(job, &drawing),
        Command::Foretell => foretold(job, &drawing),
        Command::Quote => quote(job, &drawing),
        Command::Tightest => tightest(job, &drawing),
    }
}

fn band(job: &Job, drawing: &Drawing) -> Result<u8, Failure> {
    let band = banded(job, drawing)?;
    picture(job, drawing, &band, &[])?;
    output::print(|out| print_band(out, &band))?;
    Ok(0)
}

fn inspect(job: &Job, drawing: &Drawing) -> Result<u8, Failure> {
    let points = match &job.points {
        Some(file) => points::read(file)?,
        None => Vec::new(),
    };
    let band = banded(job, drawing)?;
    let judged = judge(&band, points);
    picture(job, drawing, &band, &judged)?;
    output::print(|out| {
        print_band(out, &band)?;
        print_points(out, &judged)
    })?;
    let counts = Counts::of(&judged);
    Ok(if counts.refused > 0 { 2 } else { u8::from(counts.off > 0) })
}

fn foretold(job: &Job, drawing: &Drawing) -> Result<u8, Failure> {
    let Shape::Curves(curves) = &drawing.shape else {
        return Err(format!("{}: leaves are foretold of curves, and this is a spline", drawing.name).into());
    };
    let tolerance = tolerance(job, drawing);
    let mut depths = vec![0; curves.count()];
    let foretold = foretell(&curves.numbers, tolerance, job.options.pieces, &mut depths)
        .map_err(|refusal| refused(job, drawing, refusal))?;
    if job.options.svg.is_some() {
        picture(job, drawing, &banded(job, drawing)?, &[])?;
    }
    output::print(|out| {
        for (curve, depth) in depths.iter().enumerate() {
            match depth {
                -1 => writeln!(out, "curve {curve}: no depth")?,
                _ => writeln!(out, "curve {curve}: depth {depth}, leaves at most {}", 1 << depth)?,
            }
        }
        match foretold {
            Some(most) => writeln!(
                out,
                "tolerance {tolerance}: leaves at most {}, nodes at most {}",
                most.leaves, most.nodes
            ),
            None => writeln!(out, "tolerance {tolerance}: nothing is foretold, since a curve has no depth"),
        }
    })?;
    Ok(0)
}

fn quote(job: &Job, drawing: &Drawing) -> Result<u8, Failure> {
    let band = banded(job, drawing)?;
    picture(job, drawing, &band, &[])?;
    output::print(|out| {
        print_report(out, &band)?;
        writeln!(out, "quote {}", band.quote())
    })?;
    Ok(0)
}

fn tightest(job: &Job, drawing: &Drawing) -> Result<u8, Failure> {
    let Shape::Curves(curves) = &drawing.shape else {
        return Err(format!("{}: the tightest band is of curves, and this is a spline", drawing.name).into());
    };
    let leaves = job.options.leaves.expect("the command has --leaves");
    let found = Band::tightest(&curves.numbers, job.options.pieces, leaves);
    let Some(band) = found.map_err(|refusal| refused(job, drawing, refusal))? else {
        output::print(|out| writeln!(out, "no tolerance: there are more than {leaves} leaves at every one"))?;
        return Ok(1);
    };
    picture(job, drawing, &band, &[])?;
    output::print(|out| print_report(out, &band))?;
    Ok(0)
}

/// The tolerance of the command line, or else of the file.
fn tolerance(job: &Job, drawing: &Drawing) -> i32 {
    job.options.tolerance.or(drawing.tolerance).expect("an outline file is read with one of the two")
}

fn banded(job: &Job, drawing: &Drawing) -> Result<Band, Failure> {
    drawing
        .band(tolerance(job, drawing), job.options.pieces)
        .map_err(|refusal| refused(job, drawing, refusal))
}

/// A refusal in words, with the option or the line of the file that is at fault.
fn refused(job: &Job, drawing: &Drawing, refusal: Refusal) -> Failure {
    match (refusal, job.options.tolerance) {
        (Refusal::Pieces, _) => format!("--pieces {}: {refusal}", job.options.pieces as i32).into(),
        (Refusal::Tolerance, Some(tolerance)) => format!("--tolerance {tolerance}: {refusal}").into(),
        _ => drawing.refused(refusal),
    }
}

/// Judges points, many in a call, and tells how far it is.
fn judge(band: &Band, points: Vec<Point>) -> Vec<Judged> {
    // Each call checks the whole list of leaves, so a call gets at least as many points as there are leaves.
    let many = 100_000.max(band.report().leaves);
    let mut progress = Progress::new("points judged", points.len());
    let mut judged = Vec::with_capacity(points.len());
    for some in points.chunks(many) {
        judged.extend(some.iter().copied().zip(band.judge_points(some)));
        progress.tell(judged.len());
    }
    judged
}

/// Draws the picture that is asked for.
fn picture(job: &Job, drawing: &Drawing, band: &Band, points: &[Judged]) -> Result<(), Failure> {
    let Some(file) = &job.options.svg else { return Ok(()) };
    let picture = Picture { drawing, band, points, boxes: job.options.boxes };
    let draw = || {
        let mut out = BufWriter::new(File::create(file)?);
        picture.write(&mut out)?;
        out.flush()
    };
    draw().map_err(|error: io::Error| Failure::of_stream(&file.to_string_lossy(), &error))
}

fn print_report(out: &mut dyn Write, band: &Band) -> io::Result<()> {
    let report = band.report();
    writeln!(
        out,
        "tolerance {}: curves {}, leaves {}, nodes {}",
        band.tolerance(),
        report.curves,
        report.leaves,
        report.nodes
    )
}

fn print_band(out: &mut dyn Write, band: &Band) -> io::Result<()> {
    print_report(out, band)?;
    for leaf in band.leaves() {
        write!(out, "curve {} node {}", leaf.curve, leaf.node)?;
        for b in leaf.boxes {
            write!(out, " ({} {} {} {})", b.x.low, b.x.high, b.y.low, b.y.high)?;
        }
        writeln!(out)?;
    }
    Ok(())
}

fn print_points(out: &mut dyn Write, judged: &[Judged]) -> io::Result<()> {
    for ([x, y], judgement) in judged {
        match judgement {
            Ok(Judgement::On { leaf, cover }) => writeln!(out, "({x} {y}) on, record {leaf} cover {cover}")?,
            Ok(Judgement::Off) => writeln!(out, "({x} {y}) off")?,
            Err(refusal) => writeln!(out, "({x} {y}) {refusal}")?,
        }
    }
    let Counts { on, off, refused } = Counts::of(judged);
    writeln!(out, "points {}: on {on}, off {off}, refused {refused}", judged.len())
}

/// How many points are on, off and refused.
#[derive(Default)]
pub struct Counts {
    /// Points on the band.
    pub on: usize,
    /// Points off it.
    pub off: usize,
    /// Points out of range.
    pub refused: usize,
}

impl Counts {
    /// The counts of some judgements.
    pub fn of(judged: &[Judged]) -> Counts {
        let mut counts = Counts::default();
        for (_, judgement) in judged {
            match judgement {
                Ok(Judgement::On { .. }) => counts.on += 1,
                Ok(Judgement::Off) => counts.off += 1,
                Err(_) => counts.refused += 1,
            }
        }
        counts
    }
}

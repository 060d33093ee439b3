//! A take on its way from a WAV file to an HCA file: what `convert` and `bank` share.
use crate::commands::wav::{content, notes};
use crate::input::Input;
use crate::options::Name;
use crate::parse::Options;
use crate::report;
use crate::stop::Stop;
use hca_convert::{convert, Converted, Fault, Settings};
use hca_frame::{read_wav, write_list, Refusal, Take};

/// A lower number is one of kbit/s, and the file would be noise.
const LEAST_BITRATE: u64 = 1000;

/// The bit rate that the options say.
pub fn bitrate_of(options: &Options) -> Result<u32, Stop> {
    let n = options.number(Name::Bitrate).unwrap_or(0);
    match u32::try_from(n) {
        Ok(bitrate) if LEAST_BITRATE <= n => Ok(bitrate),
        _ => Err(Stop::wrong(format_args!("--bitrate is {n}; it is {LEAST_BITRATE} to {}, in bits a second", u32::MAX))),
    }
}

/// The HCA file and the list of a WAV file. `note` hears what its numbers do not tell, `told` how many frames of how many are done.
pub fn make(
    input: &mut Input,
    settings: &Settings,
    mut note: impl FnMut(&str),
    told: impl FnMut(usize, usize),
) -> Result<(Converted, Vec<u8>), Stop> {
    let wav = content(input)?;
    notes(&wav).iter().for_each(|one| note(one));
    let take = read_wav(&wav).map_err(|refusal| Stop::refused(report::refused_file(refusal)))?;
    drop(wav);
    let made = convert(&take, settings, told).map_err(|fault| refused(&take, fault))?;
    let list = write_list(&made.entries).map_err(|refusal| Stop::refused(report::refused_file(refusal)))?;
    Ok((made, list))
}

fn refused(take: &Take, fault: Fault) -> Stop {
    match fault {
        Fault::Unfit => Stop::refused(format!(
            "hcaframe: {}: {} channels, {} samples a second; there are 1 to 8, and 1 to 8388607\n",
            report::refusal(Refusal::new(Refusal::BAD_HEADER, 0)),
            take.channels,
            take.rate
        )),
        Fault::Resolutions(error) => Stop::wrong(format_args!("refusal 1: {error}")),
        Fault::Empty => Stop::refused("hcaframe: it has no samples\n".to_string()),
        Fault::Loop(length) => Stop::wrong(format_args!(
            "the loop does not lie within the take: --loop-start is below --loop-end, and that at most {length}, its samples a channel"
        )),
        Fault::Header(refusal) => Stop::refused(report::refused_file(refusal)),
        Fault::Frame(frame, refusal) => Stop::refused(report::refused_frame(frame as u64, refusal)),
    }
}

//! The slots of a deal.
use super::super::answer::Answer;
use super::super::args::Stream;
use super::super::failure::Failure;
use super::listing::Listing;

/// Lists every slot of the index.
pub fn list(deal: &Stream) -> Result<Answer, Failure> {
    Ok(match Listing::read(deal)? {
        Ok(listing) => listing.beside(listing.told(Answer::done("done"))),
        Err(refused) => refused,
    })
}

//! What a made session consists of, and how it is played: terminal data, a card
//! and its answers, ways to change them, and the plan that has it all. Each
//! module uses only those above it.

pub mod nodes;

pub mod applications;
pub mod start;

pub mod lists;
pub mod locators;
pub mod verification;

pub mod card;
pub mod fault;
pub mod tweak;

pub mod plan;

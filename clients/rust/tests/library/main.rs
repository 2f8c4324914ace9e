mod conformance;
mod monitor;

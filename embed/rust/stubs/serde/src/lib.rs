//! Nothing: it stands for serde where cargo can ask no registry.

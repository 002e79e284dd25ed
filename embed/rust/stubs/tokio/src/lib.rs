//! Nothing: it stands for tokio where cargo can ask no registry.

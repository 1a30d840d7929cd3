//! Stands for data-model/src/relative_encodings of the repository, which is not among the customer's files. It decides
//! nothing: it is empty, and no call of the driver needs it.

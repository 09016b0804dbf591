-- Customers, from CSV files with a header line. A line that doesn't fit its columns is a row too,
-- and its text stands in _rescued_data.
CREATE OR REFRESH STREAMING TABLE customers
COMMENT 'customers as they arrive'
AS SELECT * FROM STREAM read_files('customers',
  format => 'csv',
  schema => 'id INT, name STRING, city STRING',
  rescuedDataColumn => '_rescued_data')

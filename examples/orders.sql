-- Orders, from files of JSON lines. The table keeps three of the columns, one of them under
-- another name, and the text of each line that doesn't fit.
CREATE OR REFRESH STREAMING TABLE orders
AS SELECT orderId AS id, customer, amount, _rescued_data FROM STREAM read_files('orders',
  format => 'json',
  schema => 'orderId BIGINT, customer INT, amount BIGINT, note STRING',
  rescuedDataColumn => '_rescued_data')

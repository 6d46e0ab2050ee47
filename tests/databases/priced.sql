INSERT INTO applied SELECT 'north', number, 'Product,R' || number || ',03,15,9781234567897
ProductSupply,GB IE,,
SupplyDetail,04,06,4012345000009,North Books,21,
Price,02,' || amount || '.000,GBP,,WORLD,,,
', 1, 0, 0, 0, 0 FROM priced;
INSERT INTO record SELECT 'north', 'R' || number FROM priced;
INSERT INTO article SELECT 'north', 'R' || number, 1, '15', '9781234567897' FROM priced;
INSERT INTO offer SELECT 'north', 'R' || number, 1, 1, 'GB IE', 0, '', '04', '06', '4012345000009', 'North Books', '21', '' FROM priced;
INSERT INTO price SELECT 'north', 'R' || number, 1, 1, '02', amount * 1000, 'GBP', '', 1, '', NULL, NULL FROM priced;

# A memory of three words with contents; addresses from 3 on name no word.
module \top
  wire input 1 \clk
  wire input 2 \we
  wire width 8 input 3 \wa
  wire width 4 input 4 \wd
  wire width 8 input 5 \ra
  wire width 4 output 6 \q
  cell $mem_v2 $m
    parameter \MEMID "\\m"
    parameter \SIZE 3
    parameter \OFFSET 0
    parameter \ABITS 8
    parameter \WIDTH 4
    parameter \INIT 12'001100100001
    parameter \RD_PORTS 1
    parameter \RD_CLK_ENABLE 1'0
    parameter \RD_CLK_POLARITY 1'0
    parameter \RD_TRANSPARENCY_MASK 1'0
    parameter \RD_COLLISION_X_MASK 1'0
    parameter \RD_WIDE_CONTINUATION 1'0
    parameter \RD_CE_OVER_SRST 1'0
    parameter \RD_ARST_VALUE 4'x
    parameter \RD_SRST_VALUE 4'x
    parameter \RD_INIT_VALUE 4'x
    parameter \WR_PORTS 1
    parameter \WR_CLK_ENABLE 1'1
    parameter \WR_CLK_POLARITY 1'1
    parameter \WR_PRIORITY_MASK 1'0
    parameter \WR_WIDE_CONTINUATION 1'0
    connect \RD_CLK 1'x
    connect \RD_EN 1'1
    connect \RD_ARST 1'0
    connect \RD_SRST 1'0
    connect \RD_ADDR \ra
    connect \RD_DATA \q
    connect \WR_CLK \clk
    connect \WR_EN { \we \we \we \we }
    connect \WR_ADDR \wa
    connect \WR_DATA \wd
  end
end

%require "3.2" )
